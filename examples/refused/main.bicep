// A storage account without a location, which the catalogue refuses.
resource account 'Microsoft.Storage/storageAccounts@2023-01-01' = {
  name: 'logs'
  sku: { name: 'Standard_LRS' }
}
