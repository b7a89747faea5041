// Web sites on plans of their own, their common store and, in production, a backup.
@allowed([ 'dev', 'prod' ])
param stage string
param apps array
@secure()
param password string

var isProd = stage == 'prod'
var tags = {
  stage: stage
  by: deployment().name
}

// The store of the site is declared in a module, and its state is read here.
resource files 'Microsoft.Storage/storageAccounts@2023-01-01' existing = {
  name: 'shopfiles'
}

module store 'modules/store.bicep' = {
  name: 'store'
  params: {
    name: files.name
    tags: tags
  }
}

module sites 'modules/site.bicep' = [for (app, i) in apps: {
  name: 'site-${app.name}'
  params: {
    name: app.name
    isLarge: isProd && i == 0
    settings: [
      { name: 'STAGE', value: stage }
      { name: 'FILES', value: store.outputs.files }
      { name: 'PASSWORD', value: password }
    ]
  }
}]

resource backup 'Demo.Lab/backups@2024-01-01' = if (isProd) {
  name: 'nightly'
  tags: tags
  properties: {
    of: [for (app, i) in apps: sites[i].outputs.id]
  }
}

output backup string = isProd ? backup.properties.of[0] : 'none'
output files string = files.properties.primaryEndpoints.blob
output hosts array = [for (app, i) in apps: sites[i].outputs.host]
output kind string = files.kind
output plans array = [for (app, i) in apps: sites[i].outputs.size]
