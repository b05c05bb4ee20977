"""A signal at a random moment: files are done in random ways, and each run is ended by a signal, then begun again.

After each signal and after the last run the promise holds, and the run that goes to its end makes what is left. Only a run that was killed
may leave temporary files.
"""

import random
import signal
import subprocess
import time

from place import ENVIRONMENT, GOOD, SECONDS, TOOL, Place, Promise, marked

SIGNALS = (signal.SIGKILL, signal.SIGTERM, signal.SIGTERM, signal.SIGINT, signal.SIGHUP, signal.SIGQUIT, signal.SIGUSR1)
BATCH = 20  # files in a call
MOMENT = 0.02  # seconds that a file takes


def prepared(texts, place, dice):
    """Files, of which some have an output: theirs, or another one."""
    promises = []
    for number in range(BATCH):
        name = f"f{number}.rnx"
        place.write(name, marked(GOOD, number))
        if dice.random() < 0.3:
            place.write(f"f{number}.crx", texts.filtered(marked(GOOD, number if dice.random() < 0.5 else 99), "rnx2crx", "--date", "old"))
        promises.append(Promise(texts, "rnx2crx", place, name, f"f{number}.crx"))
    return promises


def command_of(promises):
    return [*TOOL, "rnx2crx", "-f", "--verified-to", "list", *(promise.source.name for promise in promises)]


def lines_up_to_a_moment(run, dice):
    """The lines of a run up to a moment in one of its files; or to one before the first, when Python may not be at the tool yet."""
    begun = dice.random() < 0.9
    said = [run.stdout.readline() for _ in range(dice.randrange(BATCH))] if begun else []
    time.sleep(dice.random() * (MOMENT if begun else 0.2))
    return said


def after_its_end(place, promises, command, said):
    """What is wrong after a call that was ended, and said these lines; and after the same, begun again, has ended."""
    wrong = []
    for promise in promises:
        claims = "\n".join(line for line in said if line.startswith(f"{promise.source.name}: "))
        wrong += [f"{promise.source.name}: {line}" for line in promise.broken(claims)]
    wrong += ["a half list"] if len(place.listed() or [0] * BATCH) != BATCH else []
    (place.work / "list").unlink(missing_ok=True)
    left = place.parts()
    again = subprocess.run(command, cwd=place.work, env=ENVIRONMENT, capture_output=True, text=True, timeout=SECONDS)
    wrong += [] if again.returncode == 0 and all(promise.is_new() for promise in promises) else [f"begun again: status {again.returncode}, {again.stderr!r}"]
    return wrong + ([] if place.parts() == left and len(left) < 3 else [f"left at last: {place.parts()}"])


def one_batch(texts, dice):
    """One call that is ended by a signal, and the same to its end: what is wrong, and whether the run was at work."""
    with Place() as place:
        promises = prepared(texts, place, dice)
        command = command_of(promises)
        sign = dice.choice(SIGNALS)
        with subprocess.Popen(command, cwd=place.work, env=ENVIRONMENT, stdout=subprocess.PIPE, stderr=subprocess.DEVNULL, text=True) as run:
            said = lines_up_to_a_moment(run, dice)
            at_work = run.poll() is None
            run.send_signal(sign)
            began, said = said, said + run.communicate(timeout=SECONDS)[0].splitlines()
        wrong = []
        if sign != signal.SIGKILL:
            wrong += [f"status {run.returncode}, not that of {sign.name}"] if began and at_work and run.returncode not in (-sign, 0) else []
            wrong += [f"left: {place.parts()}"] if place.parts() else []
        return wrong + after_its_end(place, promises, command, said), at_work


def check(texts, calls):
    dice = random.Random(1)
    ended = [one_batch(texts, dice) for _ in range(calls)]
    at_work = sum(at_work for _, at_work in ended)
    print(f"    {calls} signals, {at_work} while the run was at work", flush=True)
    return [line for lines, _ in ended for line in lines][:6] + ([] if at_work else ["no run was at work when its signal came"])


def checks(texts, calls=4):
    yield "signals", lambda: check(texts, calls)
