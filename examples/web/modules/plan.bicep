// The plan of a site.
param name string
param size string

resource plan 'Microsoft.Web/serverfarms@2022-09-01' = {
  name: 'plan-${name}'
  location: resourceGroup().location
  sku: { name: size }
}

output id string = plan.id
output size string = plan.sku.name
