resource a 'Demo.Lab/things@2024-01-01' = {
  name: 'a'
  size: 2
}
