// A network with its subnets, a security group for each of them, and a peering to each network in a list.
param location string = resourceGroup().location
param prefix string = '10.20'
param subnets array = [
  { name: 'web', ports: [ 80, 443 ] }
  { name: 'data', ports: [ 5432 ] }
]
param spokes array = [ 'north', 'south' ]

var space = '${prefix}.0.0/16'

resource groups 'Microsoft.Network/networkSecurityGroups@2023-04-01' = [for subnet in subnets: {
  name: 'nsg-${subnet.name}'
  location: location
  properties: {
    securityRules: [for (port, i) in subnet.ports: {
      name: 'port-${port}'
      properties: {
        access: 'Allow'
        direction: 'Inbound'
        priority: 100 + 10 * i
        destinationPortRange: string(port)
      }
    }]
  }
}]

resource hub 'Microsoft.Network/virtualNetworks@2023-04-01' = {
  name: 'hub'
  location: location
  properties: {
    addressSpace: { addressPrefixes: [ space ] }
  }

  resource parts 'subnets' = [for (subnet, i) in subnets: {
    name: subnet.name
    properties: {
      addressPrefix: '${prefix}.${i}.0/24'
      networkSecurityGroup: { id: groups[i].id }
    }
  }]
}

resource others 'Microsoft.Network/virtualNetworks@2023-04-01' = [for spoke in spokes: {
  name: 'net-${spoke}'
  location: location
  properties: {}
}]

resource peerings 'Microsoft.Network/virtualNetworks/virtualNetworkPeerings@2023-04-01' = [for (spoke, i) in spokes: {
  parent: hub
  name: 'to-${spoke}'
  properties: {
    remoteVirtualNetwork: { id: others[i].id }
  }
}]

output hub string = hub.id
output prefixes array = [for (subnet, i) in subnets: hub::parts[i].properties.addressPrefix]
output rules int = length(groups[0].properties.securityRules)
output state string = peerings[1].properties.provisioningState
output peers array = [for (spoke, i) in spokes: last(split(peerings[i].properties.remoteVirtualNetwork.id, '/'))]
