"""Reports for the shop's staff."""

from gql import gql

SALES = gql(r'''
  query WeeklySales($id: ID!) { customer(id: $id) { ...CustomerName orders(first: 50) { ...OrderHead lines { ...Line } } } }
''')

RETURNS = gql(r'''
  query WeeklyReturns($id: ID!) { customer(id: $id) { ...CustomerName orders(first: 10) { ...OrderHead lines { ...Line } } } }
''')

BEST = gql(r'''
  query WeeklyBest($id: ID!) { customer(id: $id) { ...CustomerName orders(first: 1) { ...OrderHead lines { ...Line } } } }
''')

LATE = gql(r'''
  query WeeklyLate($id: ID!) { customer(id: $id) { ...CustomerName orders(first: 5) { ...OrderHead lines { ...Line } } } }
''')
