#!/usr/bin/env python3
# Prints what the program signing_day must print. The kernel is told here a second time, from docs/INTERFACE.md and
# docs/STORE.md, over the packed store and the level order; the unit's day is told a second time from the program.
# Only the calls that the day makes are here. A kernel is a map; an answer and a refusal are maps too.

TOP = 4294967295
UNITS = 4096
HEADER = 16

NAMES = {
    1: "ANSWER_DUE", 2: "NOTHING_DUE", 3: "IDLE_TASK", 4: "BAD_NUMBER", 5: "BAD_LEVEL", 6: "BAD_SHAPE", 7: "TAKEN",
    8: "NO_MAILBOX", 10: "WRONG_SIZE", 11: "SHORT_BUFFER", 12: "MIXED", 14: "FULL", 15: "TOO_LONG",
    16: "NUMBERS_SPENT", 20: "STORE_FULL",
}

# The rows of refusals that a call tries, in this order.
TRIED = {
    "create_task": [1, 4, 5, 7],
    "create_mailbox": [1, 4, 6, 7],
    "terminate": [1, 3],
    "send_wait": [1, 3, 4, 8, 10, 12, 14, 16, 20],
    "send_no_wait": [1, 4, 8, 10, 12, 16, 20],
    "receive_wait": [1, 3, 4, 8, 11, 14],
    "wait": [1, 3, 15],
    "collect": [2, 11],
    "set_deadline": [1, 3],
}

COUNTS = ["accepted", "queued", "handed_over", "withdrawn", "displaced"]


# ---- the store: bytes under message numbers ----

# What a message of so many bytes costs.
def cost(length):
    return length + HEADER


# The units in use.
def used(store):
    return sum(cost(len(held)) for held in store.values())


# Writes what is held to the front of the buffer, and holds it no more; answers its length.
def take_out(store, number, buffer):
    held = store.pop(number)
    buffer[:len(held)] = held
    return len(held)


# ---- the kernel: what it keeps ----

# A start-up kernel: task 0 alone, no mailbox, nothing held.
def init_kernel(first):
    return {
        "counter": 0, "next": first, "store": {}, "tasks": {0: new_task(TOP, 31)}, "ready": [0], "mailboxes": {},
        "counts": {name: 0 for name in COUNTS},
    }


# A ready task with no answer due.
def new_task(deadline, level):
    return {"deadline": deadline, "level": level, "state": "ready", "due": None}


# The number of the running task.
def running(kernel):
    return kernel["ready"][0]


# The running task itself.
def runner(kernel):
    return kernel["tasks"][running(kernel)]


# The counter.
def ticks(kernel):
    return kernel["counter"]


# Puts a task in front of the first that it goes before by level, or else just in front of task 0.
def enter(kernel, number):
    ready = kernel["ready"]
    level = kernel["tasks"][number]["level"]
    for place, other in enumerate(ready):
        if other == 0 or level < kernel["tasks"][other]["level"]:
            ready.insert(place, number)
            return


# Takes the running task out of the ready list; from now on it waits or sleeps.
def leave(kernel, state, **where):
    number = kernel["ready"].pop(0)
    kernel["tasks"][number].update(where, state=state)


# Makes a task ready with an answer due.
def make_ready(kernel, number, due):
    kernel["tasks"][number].update(state="ready", due=due)
    enter(kernel, number)


# One of the queued messages goes to another fate.
def fate(kernel, name):
    kernel["counts"]["queued"] -= 1
    kernel["counts"][name] += 1


# ---- the kernel: refusals ----

# A refusal by a row of the table.
def refusal(row, layer, place, units=None):
    return {"row": row, "layer": layer, "place": place, "units": units}


# Tries the rows of a call from the top; answers the first that holds, or nothing.
def refused(kernel, call, **given):
    for row in TRIED[call]:
        found = HOLDS[row](kernel, call, given)
        if found:
            return found
    return None


# A refusal whose place is the running task, if it holds.
def at_runner(kernel, row, holds):
    return refusal(row, "kernel", running(kernel)) if holds else None


# A refusal whose place is the number given, if it holds.
def at_number(row, given, holds):
    return refusal(row, "kernel", given["number"]) if holds else None


# A refusal whose place is a mailbox, if it holds.
def at_mailbox(row, given, holds):
    return refusal(row, "mailbox", given["number"]) if holds else None


# The mailbox that a call names.
def named(kernel, given):
    return kernel["mailboxes"][given["number"]]


# Row 1: an answer is due to the running task.
def answer_due(kernel, call, given):
    return at_runner(kernel, 1, runner(kernel)["due"] is not None)


# Row 2: no answer is due to it.
def nothing_due(kernel, call, given):
    return at_runner(kernel, 2, runner(kernel)["due"] is None)


# Row 3: task 0 runs.
def idle_task(kernel, call, given):
    return at_runner(kernel, 3, running(kernel) == 0)


# Row 4: no task or mailbox may have this number.
def bad_number(kernel, call, given):
    least, most = (1, 63) if call == "create_task" else (0, 31)
    return at_number(4, given, not least <= given["number"] <= most)


# Row 5: no task may have this level.
def bad_level(kernel, call, given):
    return at_number(5, given, given["level"] > 31)


# Row 6: no mailbox may have this capacity or size.
def bad_shape(kernel, call, given):
    return at_number(6, given, not (1 <= given["capacity"] <= 16 and 1 <= given["size"] <= 128))


# Row 7: the number is in use.
def taken(kernel, call, given):
    kind = "tasks" if call == "create_task" else "mailboxes"
    return at_number(7, given, given["number"] in kernel[kind])


# Row 8: there is no such mailbox.
def no_mailbox(kernel, call, given):
    return at_mailbox(8, given, given["number"] not in kernel["mailboxes"])


# Row 10: the bytes have not the size of the mailbox.
def wrong_size(kernel, call, given):
    return at_mailbox(10, given, len(given["bytes"]) != named(kernel, given)["size"])


# Row 11: the buffer is too short, for a mailbox or for the message due.
def short_buffer(kernel, call, given):
    room = len(given["buffer"])
    if call != "collect":
        return at_mailbox(11, given, room < named(kernel, given)["size"])
    due = runner(kernel)["due"]
    return at_runner(kernel, 11, due["brings"] and room < len(kernel["store"][due["message"]]))


# Row 12: messages of the other mode are queued.
def mixed(kernel, call, given):
    waits = call == "send_wait"
    return at_mailbox(12, given, any((sender is not None) != waits for _, sender in named(kernel, given)["queue"]))


# Row 14: as many entries as the capacity.
def full(kernel, call, given):
    mailbox = named(kernel, given)
    entries = mailbox["queue"] if call == "send_wait" else mailbox["receivers"]
    return at_mailbox(14, given, len(entries) >= mailbox["capacity"])


# Row 15: the wake tick is above the largest counter.
def too_long(kernel, call, given):
    return at_runner(kernel, 15, kernel["counter"] + given["n"] > TOP)


# Row 16: the last message number has been used.
def numbers_spent(kernel, call, given):
    return at_runner(kernel, 16, kernel["next"] > TOP)


# Row 20: the store has not the units; those of a message that this send displaces count as free.
def store_full(kernel, call, given):
    wanted = cost(len(given["bytes"]))
    free = UNITS - used(kernel["store"])
    oldest = to_displace(kernel, call, given)
    if oldest is not None:
        free += cost(len(kernel["store"][oldest]))
    return refusal(20, "store", kernel["next"], (wanted, free)) if wanted > free else None


# The message that a send would displace, or nothing.
def to_displace(kernel, call, given):
    mailbox = named(kernel, given)
    if call == "send_no_wait" and len(mailbox["queue"]) == mailbox["capacity"]:
        return mailbox["queue"][0][0]
    return None


HOLDS = {
    1: answer_due, 2: nothing_due, 3: idle_task, 4: bad_number, 5: bad_level, 6: bad_shape, 7: taken, 8: no_mailbox,
    10: wrong_size, 11: short_buffer, 12: mixed, 14: full, 15: too_long, 16: numbers_spent, 20: store_full,
}


# ---- the kernel: calls ----

# An answer: its status, and the fields that are present.
def answer(status, message=None, length=None, displaced=None):
    return {"status": status, "message": message, "length": length, "displaced": displaced}


# An answer due: its status, the message it names, and whether it brings the bytes of it.
def due_answer(status, message=None, brings=False):
    return {"status": status, "message": message, "brings": brings}


# Makes a task, which is ready.
def create_task(kernel, number, deadline, level):
    fault = refused(kernel, "create_task", number=number, level=level)
    if fault:
        return fault
    kernel["tasks"][number] = new_task(deadline, level)
    enter(kernel, number)
    return answer("OK")


# Makes an empty mailbox.
def create_mailbox(kernel, number, capacity, size):
    fault = refused(kernel, "create_mailbox", number=number, capacity=capacity, size=size)
    if fault:
        return fault
    kernel["mailboxes"][number] = {"capacity": capacity, "size": size, "queue": [], "receivers": []}
    return answer("OK")


# The start-up kernel becomes the running one.
def run(kernel):
    kernel["counter"] = 0
    return kernel


# The running task ends.
def terminate(kernel):
    fault = refused(kernel, "terminate")
    if fault:
        return fault
    del kernel["tasks"][kernel["ready"].pop(0)]
    return answer("OK")


# Puts the bytes into the store under the next number, and answers that number.
def accept(kernel, sent):
    number = kernel["next"]
    kernel["next"] = number + 1
    kernel["store"][number] = bytes(sent)
    kernel["counts"]["accepted"] += 1
    kernel["counts"]["queued"] += 1
    return number


# Gives a message to the oldest waiting receiver, if there is one.
def give(kernel, mailbox, message):
    if not mailbox["receivers"]:
        return False
    make_ready(kernel, mailbox["receivers"].pop(0), due_answer("OK", message, True))
    fate(kernel, "handed_over")
    return True


# Sends, and waits until the message is taken.
def send_wait(kernel, number, sent):
    fault = refused(kernel, "send_wait", number=number, bytes=sent)
    if fault:
        return fault
    mailbox = kernel["mailboxes"][number]
    message = accept(kernel, sent)
    if give(kernel, mailbox, message):
        return answer("OK", message)
    mailbox["queue"].append((message, running(kernel)))
    leave(kernel, "sender", mailbox=number, message=message)
    return answer("BLOCKED", message)


# Sends without waiting; at a full mailbox the oldest message gives way.
def send_no_wait(kernel, number, sent):
    fault = refused(kernel, "send_no_wait", number=number, bytes=sent)
    if fault:
        return fault
    mailbox = kernel["mailboxes"][number]
    oldest = to_displace(kernel, "send_no_wait", {"number": number})
    if oldest is not None:
        mailbox["queue"].pop(0)
        del kernel["store"][oldest]
        fate(kernel, "displaced")
    message = accept(kernel, sent)
    if not give(kernel, mailbox, message):
        mailbox["queue"].append((message, None))
    return answer("OK", message, displaced=oldest)


# Takes the oldest message, or waits for one.
def receive_wait(kernel, number, buffer):
    fault = refused(kernel, "receive_wait", number=number, buffer=buffer)
    if fault:
        return fault
    mailbox = kernel["mailboxes"][number]
    if mailbox["queue"]:
        return take(kernel, mailbox, buffer)
    mailbox["receivers"].append(running(kernel))
    leave(kernel, "receiver", mailbox=number)
    return answer("BLOCKED")


# Takes the oldest message; a task that waits with it becomes ready.
def take(kernel, mailbox, buffer):
    message, sender = mailbox["queue"].pop(0)
    length = take_out(kernel["store"], message, buffer)
    fate(kernel, "handed_over")
    if sender is not None:
        make_ready(kernel, sender, due_answer("OK", message))
    return answer("OK", message, length)


# The running task sleeps.
def wait(kernel, n):
    fault = refused(kernel, "wait", n=n)
    if fault:
        return fault
    leave(kernel, "asleep", wake=kernel["counter"] + n)
    return answer("BLOCKED")


# Gives the running task the answer due.
def collect(kernel, buffer):
    fault = refused(kernel, "collect", buffer=buffer)
    if fault:
        return fault
    due = runner(kernel)["due"]
    runner(kernel)["due"] = None
    length = take_out(kernel["store"], due["message"], buffer) if due["brings"] else None
    return answer(due["status"], due["message"], length)


# Gives the running task a deadline; it enters the ready list again.
def set_deadline(kernel, deadline):
    fault = refused(kernel, "set_deadline")
    if fault:
        return fault
    runner(kernel)["deadline"] = deadline
    enter(kernel, kernel["ready"].pop(0))
    return answer("OK")


# The counter rises; answers how many tasks became ready, and who runs.
def tick(kernel):
    kernel["counter"] = min(kernel["counter"] + 1, TOP)
    readied = 0
    for number in range(1, 64):
        if number in kernel["tasks"] and visit(kernel, number):
            readied += 1
    return readied, running(kernel)


# Makes a task ready if its waiting or sleep ends at this tick; tells whether it did.
def visit(kernel, number):
    task = kernel["tasks"][number]
    late = task["deadline"] <= kernel["counter"]
    if task["state"] == "asleep" and not late and task["wake"] <= kernel["counter"]:
        make_ready(kernel, number, due_answer("OK"))
        return True
    if task["state"] == "ready" or not late:
        return False
    make_ready(kernel, number, due_answer("DEADLINE_REACHED", give_up(kernel, number, task)))
    return True


# A task stands in its mailbox no more; answers the message that it withdraws, if any.
def give_up(kernel, number, task):
    if task["state"] == "asleep":
        return None
    mailbox = kernel["mailboxes"][task["mailbox"]]
    if task["state"] == "receiver":
        mailbox["receivers"].remove(number)
        return None
    mailbox["queue"].remove((task["message"], number))
    del kernel["store"][task["message"]]
    fate(kernel, "withdrawn")
    return task["message"]


# The kernel ends; answers the five counts.
def close(kernel):
    return dict(kernel["counts"])


# ---- printed forms ----

# The words of an answer or a refusal.
def text(reply):
    return refusal_text(reply) if "row" in reply else answer_text(reply)


# The words of a refusal.
def refusal_text(fault):
    words = ["refused", str(fault["row"]), NAMES[fault["row"]], f"layer={fault['layer']}", f"place={fault['place']}"]
    if fault["units"]:
        words += [f"wanted={fault['units'][0]}", f"free={fault['units'][1]}"]
    return " ".join(words)


# The words of an answer.
def answer_text(reply):
    fields = [name for name in ["message", "length", "displaced"] if reply[name] is not None]
    return " ".join([reply["status"]] + [f"{name}={reply[name]}" for name in fields])


# The words of the five counts.
def counts_text(counts):
    return " ".join(f"{name}={counts[name]}" for name in COUNTS)


# The status of an answer; a refusal has none.
def status(reply):
    return reply.get("status")


# ---- the unit: its desks and its book ----

PATTERN = "...t...t...t"
CALLS = 200
ORDERS, SIGNED, INSPECTED = 0, 1, 2

# Number, capacity and size of each mailbox.
MAILBOXES = [(ORDERS, 4, 24), (SIGNED, 8, 28), (INSPECTED, 8, 28)]

SUBJECTS = [
    "CN=gate-1.example", "CN=gate-2.example", "CN=vault.example", "CN=lift-7.example",
    "CN=badge-printer.example", "CN=turnstile.example", "CN=door-12.example", "CN=camera-3.example",
]

# Name, level, role, patience, rest and first order of each desk, by rising task number from 1.
STAFF = [
    ("intake-1", 20, "intake", 5, 1, 0),
    ("intake-2", 20, "intake", 5, 1, 2),
    ("intake-3", 20, "intake", 5, 1, 4),
    ("intake-4", 20, "intake", 4, 1, 6),
    ("signer-1", 10, "signer", 60, 6, 0),
    ("signer-2", 10, "signer", 60, 9, 0),
    ("inspector-1", 12, "inspector", 60, 0, 0),
    ("inspector-2", 12, "inspector", 60, 0, 0),
    ("inspector-3", 12, "inspector", 60, 0, 0),
    ("directory", 14, "clerk", 80, 0, 0),
    ("archive", 14, "clerk", 80, 0, 0),
    ("clock", 2, "clock", 0, 10, 0),
]

# Where a desk receives from.
SOURCE = {"signer": ORDERS, "inspector": SIGNED, "clerk": INSPECTED}


# A desk before its first call; an intake has two orders.
def new_desk(task, name, level, role, patience, rest_ticks, order):
    return {
        "task": task, "name": name, "level": level, "role": role, "patience": patience, "rest": rest_ticks,
        "order": order, "last": order + 2, "step": "prepare", "deadline": 0, "paper": bytearray(28),
    }


# Prints a call of a desk and its answer.
def report(desk, call, reply):
    print(f"{desk['name']}: {call} -> {text(reply)}")


# A subject's name without its blanks.
def plain(subject):
    return subject.decode().rstrip()


# Prints every certificate, and how many have a subject with another serial.
def show(book):
    subjects = [subject for subject, _ in book]
    for subject, serial in book:
        print(f"certificate {serial} for {plain(subject)}")
    twice = sum(1 for subject in subjects if subjects.count(subject) > 1)
    print(f"certificates whose subject has another serial: {twice}")


# ---- the unit: what a desk does when its task runs ----

# One call by a desk, by its role and its step.
def work(kernel, desk, book):
    step, role = desk["step"], desk["role"]
    if step == "prepare":
        prepare(kernel, desk)
    elif step == "rest":
        rest(kernel, desk)
    elif step == "wake":
        wake(kernel, desk)
    elif step == "pass":
        pass_on(kernel, desk, book)
    elif step == "call":
        file_order(kernel, desk) if role == "intake" else receive(kernel, desk)
    else:
        hear(kernel, desk) if role == "intake" else get_due(kernel, desk)


# Sets the deadline of the next wait; the clock sleeps instead, and an intake with no order left ends.
def prepare(kernel, desk):
    if desk["role"] == "clock":
        rest(kernel, desk)
    elif desk["role"] == "intake" and desk["order"] >= desk["last"]:
        report(desk, "terminate", terminate(kernel))
    else:
        desk["deadline"] = min(ticks(kernel) + desk["patience"], TOP)
        desk["step"] = "call"
        report(desk, f"set_deadline {desk['deadline']}", set_deadline(kernel, desk["deadline"]))


# An intake files its next order, and waits until it is taken.
def file_order(kernel, desk):
    name = SUBJECTS[desk["order"]]
    reply = send_wait(kernel, ORDERS, name.ljust(24).encode())
    desk["step"] = {"BLOCKED": "collect", "OK": "prepare"}.get(status(reply), "rest")
    if status(reply) == "OK":
        desk["order"] += 1
    report(desk, f"send_wait {name}", reply)


# An intake hears what became of its order.
def hear(kernel, desk):
    reply = collect(kernel, bytearray())
    report(desk, "collect", reply)
    desk["step"] = "prepare"
    name, counter, deadline = desk["name"], ticks(kernel), desk["deadline"]
    if status(reply) != "OK":
        print(f"{name}: the order was withdrawn, and will be filed again")
        return
    desk["order"] += 1
    if deadline <= counter:
        print(f"{name} hears at {counter}, past its deadline {deadline}, "
              "that the order was taken in time: it does not file again")
    else:
        print(f"{name}: the order was taken")


# Receives, or waits to.
def receive(kernel, desk):
    reply = receive_wait(kernel, SOURCE[desk["role"]], desk["paper"])
    received(desk, reply)
    report(desk, "receive_wait", reply)


# Gets what it has waited for.
def get_due(kernel, desk):
    reply = collect(kernel, desk["paper"])
    received(desk, reply)
    report(desk, "collect", reply)


# What a desk does after a receive or its collect.
def received(desk, reply):
    desk["step"] = {"OK": "pass", "BLOCKED": "collect"}.get(status(reply), "prepare")


# A signer gives a serial and passes the certificate on, an inspector passes it on, a clerk publishes it.
def pass_on(kernel, desk, book):
    desk["step"] = "prepare"
    if desk["role"] == "clerk":
        print(f"{desk['name']}: published {plain(desk['paper'][:24])}")
        print(f"{desk['name']}: ticks -> {ticks(kernel)}")
        return
    if desk["role"] == "signer":
        certify(desk, book)
    mailbox = SIGNED if desk["role"] == "signer" else INSPECTED
    report(desk, "send_no_wait", send_no_wait(kernel, mailbox, desk["paper"]))


# A signer enters the subject in the book, and writes the serial behind it.
def certify(desk, book):
    subject = bytes(desk["paper"][:24])
    serial = 1000 + min(len(book), 1000)
    book.append((subject, serial))
    desk["paper"][24:] = serial.to_bytes(4, "big")
    desk["step"] = "rest"
    print(f"{desk['name']}: certificate {serial} for {plain(subject)}")


# Sleeps for a while.
def rest(kernel, desk):
    desk["step"] = "wake"
    report(desk, "wait", wait(kernel, desk["rest"]))


# Collects the answer of the sleep.
def wake(kernel, desk):
    desk["step"] = "prepare"
    report(desk, "collect", collect(kernel, bytearray()))


# ---- the day ----

# Makes the mailboxes and the tasks.
def open_unit(kernel, desks):
    for number, capacity, size in MAILBOXES:
        reply = create_mailbox(kernel, number, capacity, size)
        if "row" in reply:
            print(f"create_mailbox {number}: {text(reply)}")
    for desk in desks:
        reply = create_task(kernel, desk["task"], TOP, desk["level"])
        if "row" in reply:
            print(f"create_task {desk['task']}: {text(reply)}")
        else:
            print(f"task {desk['task']} is {desk['name']}")


# The running task makes one call; task 0 makes none. Tells whether one was made.
def turn(kernel, desks, book):
    number = running(kernel)
    if number == 0:
        return False
    work(kernel, desks[number - 1], book)
    return True


# A tick falls behind each call under a t of the pattern, and whenever task 0 runs.
def day(kernel, desks, book):
    for count in range(CALLS):
        called = turn(kernel, desks, book)
        if not called or PATTERN[count % len(PATTERN)] == "t":
            readied, runs = tick(kernel)
            print(f"tick {ticks(kernel)}: readied={readied} running={runs}")


# The whole program.
def main():
    print(f"ticks by the pattern {PATTERN}, and whenever task 0 runs")
    desks = [new_desk(task, *line) for task, line in enumerate(STAFF, 1)]
    book = []
    start_up = init_kernel(1)
    open_unit(start_up, desks)
    kernel = run(start_up)
    day(kernel, desks, book)
    show(book)
    print(counts_text(close(kernel)))


if __name__ == "__main__":
    main()
