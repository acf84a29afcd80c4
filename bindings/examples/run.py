"""A run of three processes: process 0 sends to process 1, which takes the message in, and then fails."""
import lemidrosy

run = lemidrosy.Run(3)
run.deliver(run.send(0, 1))
back = run.recover({0})
print(back.rolled_back, "rolled back, line", *back.line)
