"""The layout of slots and store, spelled in Python here alone: for data/scene.py, which writes a store, and runs/programs.py, which expects them."""
VEHICLES = 63
TELEGRAM = 128


def slot(clock, telegram, heard=1, previous=0):
    """The slot of a vehicle that was heard, or is expired (2): the heard octet, the stamp and the one before it, the telegram and zeros behind it."""
    return bytes([heard]) + clock.to_bytes(4, "big") + previous.to_bytes(4, "big") + telegram + bytes(TELEGRAM - len(telegram))


SLOT = len(slot(0, b""))
STORE = VEHICLES * SLOT


def store(*slots):
    """The store with these slots for the first vehicles; nobody else was heard."""
    return b"".join(slots) + bytes(STORE - SLOT * len(slots))


def taken(before, vehicle, clock, telegram):
    """The store after a telegram was taken: the vehicle's slot is another, with the stamp that a slot heard before had, and no other octet."""
    at = SLOT * (vehicle - 1)
    previous = int.from_bytes(before[at + 1:at + 5], "big") if before[at] in (1, 2) else 0
    return before[:at] + slot(clock, telegram, 1, previous) + before[at + SLOT:]


def expired(before, *vehicles):
    """The store after a sweep that marked these vehicles: their heard octets are others, and no other octet."""
    after = bytearray(before)
    for vehicle in vehicles:
        after[SLOT * (vehicle - 1)] = 2
    return bytes(after)
