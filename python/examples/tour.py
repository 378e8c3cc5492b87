"""A courier visits three customers, each in a window of time, and comes home: PYTHONPATH=python python3 python/examples/tour.py"""

import dypdl.didppy as dp

WAY = [[0, 3, 4, 5], [3, 0, 5, 4], [4, 5, 0, 3], [5, 4, 3, 0]]
READY, DUE = [0, 5, 0, 8], [100, 16, 10, 14]
N = len(WAY)

model = dp.Model()
customer = model.add_object_type(number=N)
unvisited = model.add_set_var(object_type=customer, target=range(1, N))
location = model.add_element_var(object_type=customer, target=0)
time = model.add_int_resource_var(target=0, less_is_better=True)
distance = model.add_int_table(WAY)
due = model.add_int_table(DUE)

for j in range(1, N):
    model.add_transition(dp.Transition(
        name=f"visit {j}",
        cost=distance[location, j] + dp.IntExpr.state_cost(),
        preconditions=[unvisited.contains(j)],
        effects=[(unvisited, unvisited.remove(j)), (location, j), (time, dp.max(time + distance[location, j], READY[j]))]))
model.add_transition(dp.Transition(
    name="return",
    cost=distance[location, 0] + dp.IntExpr.state_cost(),
    preconditions=[unvisited.is_empty(), location != 0],
    effects=[(location, 0), (time, time + distance[location, 0])]))
model.add_base_case([unvisited.is_empty(), location == 0])

for j in range(1, N):
    model.add_state_constr(~unvisited.contains(j) | (time + distance[location, j] <= due[j]))
least_in = model.add_int_table([min(WAY[i][j] for i in range(N) if i != j) for j in range(N)])
model.add_dual_bound(least_in[unvisited] + (location != 0).if_then_else(least_in[0], 0))

solution = dp.CABS(model, time_limit=60).search()
print(solution)
for step in solution.transitions:
    print("   ", step.name)
print("rests on", solution.rests_on)
print(model.honest().text)
