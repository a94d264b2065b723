# Drives the line program through a pipe: a call is a line, and its answer is read before the next call is made.
import subprocess

plant = subprocess.Popen(["./run"], stdin=subprocess.PIPE, stdout=subprocess.PIPE, text=True)

def call(number, *numbers):
    plant.stdin.write(f"{number:2}" + "".join(f"{n:12}" for n in numbers) + "\n")
    plant.stdin.flush()
    return [int(n) for n in plant.stdout.readline().split()]

call(1, 0, 0, 1, 10000)                                    # load: document 0, field 0 is 10,000 kilos
call(2, 0, 1, 0, 0, 0, 0, 0, 0, 0, 0)                      # map: key 0 is that place
_, session = call(3)                                       # begin
print("change:", call(5, session, 0, 0, 3, -600))          # inc -600; its changes now
print("commit:", call(6, session))                         # the sessions buffered now
print("again:", call(6, session))                          # refused by 2: it has no slot any more
_, session = call(3)
_, mark, kind, count, kilos, *unused = call(4, session, 0) # read key 0
print("kilos:", kilos)
plant.communicate()                                        # the end of input ends the program, and its plant with it
