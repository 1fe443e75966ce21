"""Runs the jobs of bench/scale: scale.py FARM FOLDER ROUNDS HOSTS PROCESS.."""
import os
import subprocess
import sys
import time

FARM, FOLDER, ROUNDS, HOSTS = sys.argv[1], sys.argv[2], int(sys.argv[3]), sys.argv[4]
SERVERS = sys.argv[5:]
NUMBERS = [64, 128, 256, 512]
TICK = os.sysconf("SC_CLK_TCK")


def own_time(process):
    """The processor seconds of a process and of its threads."""
    total = 0
    for task in os.listdir(f"/proc/{process}/task"):
        with open(f"/proc/{process}/task/{task}/schedstat", encoding="ascii") as file:
            total += int(file.read().split()[0])
    return total / 1e9


def children_time(process):
    """The processor seconds of the children that a process waited for."""
    with open(f"/proc/{process}/stat", encoding="ascii") as file:
        fields = file.read().rsplit(")", 1)[1].split()
    return (int(fields[13]) + int(fields[14])) / TICK


def build(count):
    """The seconds that a build takes, and the processor seconds of its client."""
    jobs = "".join(f"gcc -c s{k}.i -o s{k}.o\n" for k in range(count))
    before = os.times()
    begin = time.monotonic()
    run = subprocess.run([FARM, "build", "--hosts", HOSTS, "--workers", "16", "--no-fallback"], input=jobs.encode(), cwd=FOLDER, stdout=subprocess.PIPE,
                         check=False)
    took = time.monotonic() - begin
    after = os.times()
    if run.returncode != 0 or not run.stdout.endswith(b"total %d ok %d\n" % (count, count)):
        sys.exit(f"bench/scale: a build of {count} jobs came to nothing: {run.stdout[-200:]!r}")
    return took, after.children_user - before.children_user + after.children_system - before.children_system


def main():
    for k in range(max(NUMBERS)):
        with open(os.path.join(FOLDER, f"s{k}.i"), "w", encoding="ascii") as file:
            file.write(f"int s{k};\n")
    build(NUMBERS[0])
    least, client, jobs = {}, 0, 0
    servers, compilers = sum(map(own_time, SERVERS)), sum(map(children_time, SERVERS))
    for _ in range(ROUNDS):
        for count in NUMBERS:
            took, used = build(count)
            least[count] = min(took, least.get(count, took))
            client, jobs = client + used, jobs + count
    servers, compilers = sum(map(own_time, SERVERS)) - servers, sum(map(children_time, SERVERS)) - compilers
    for count in NUMBERS:
        each = least[count] / count
        print(f"{count:4} jobs: {least[count] * 1000:6.1f} ms, {each * 1e6:6.0f} us a job, {each / (least[64] / 64):.2f} of the least number's")
    print(f"processor time a job: farm {client / jobs * 1e6:.0f} us, farmd {servers / jobs * 1e6:.0f} us, compilers {compilers / jobs * 1e6:.0f} us;"
          f" {jobs / (client + servers):.0f} jobs a second of farm and farmd")


main()
