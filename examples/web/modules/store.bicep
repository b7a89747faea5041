// The store of a site.
param name string
param tags object

resource account 'Microsoft.Storage/storageAccounts@2023-01-01' = {
  name: name
  location: resourceGroup().location
  kind: 'StorageV2'
  sku: { name: 'Standard_LRS' }
  tags: union(tags, { tier: 'data' })

  resource blobs 'blobServices' = {
    name: 'default'
    properties: { isVersioningEnabled: true }
  }
}

output files string = account.properties.primaryEndpoints.file
output isVersioned bool = account::blobs.properties.isVersioningEnabled
