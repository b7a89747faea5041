// A site on a plan of its own.
param name string
param isLarge bool
param settings array

module plan 'plan.bicep' = {
  name: 'plan-${name}'
  params: {
    name: name
    size: isLarge ? 'P1v3' : 'B1'
  }
}

resource site 'Microsoft.Web/sites@2022-09-01' = {
  name: name
  location: resourceGroup().location
  properties: {
    serverFarmId: plan.outputs.id
    host: '${name}.example.com'
    siteConfig: { appSettings: settings }
  }
}

output host string = site.properties.host
output id string = site.id
output size string = plan.outputs.size
