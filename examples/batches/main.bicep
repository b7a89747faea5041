// Five machines, at most two of them at a time, and a balancer after all of them.
param count int = 5

@batchSize(2)
resource machines 'Demo.Lab/machines@2024-01-01' = [for i in range(1, count): {
  name: 'm${i}'
  number: i
  isSpare: i == count
}]

resource balancer 'Demo.Lab/balancers@2024-01-01' = {
  name: 'front'
  targets: [ machines[0].name, machines[count - 1].name ]
  first: machines[0].id
}

output names array = [for (number, i) in range(1, count): machines[i].name]
output spare bool = machines[count - 1].isSpare
output targets array = balancer.targets
