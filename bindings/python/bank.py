"""bank.py FOLDER: the payments of the crate bank, over stores in files. The first run stops within a payment that was
prepared, and the second goes on from there. Together they print what the crate prints."""
import os
import pathlib
import sys

import argus

SETUP = """{"guardians":[
    {"objects":[{"record":{"balance":100}},{"record":{"balance":20}}]},
    {"objects":[{"record":{"balance":50}},{"record":{"balance":0}}]}]}"""
BRANCHES = (1, 2)
ACCOUNTS = {"ann": (1, 1), "ben": (1, 2), "cleo": (2, 1), "dan": (2, 2)}


class Aborted(Exception):
    """Why a payment is aborted."""


class Bank:
    def __init__(self, world):
        self.world = world

    def made(self, answer):
        if answer.kind == "refused":
            raise RuntimeError(answer.line)
        if answer.kind == "waits":
            raise Aborted("waits for other actions")
        return answer.words

    def tell_all(self, action):
        for branch in BRANCHES:
            self.made(self.world.tell(branch, action))

    def get(self, call, account):
        return int(self.made(self.world.op(call, *account, "get balance"))[0])

    def end_call(self, call, branch, commits):
        self.made(self.world.commit(call) if commits else self.world.abort(call))
        self.made(self.world.tell(branch, call))

    def change(self, top, account, amount):
        """A handler: it adds the amount to the balance, and is aborted if too little is there or if it has to wait."""
        (call,) = self.made(self.world.call(top, account[0]))
        try:
            balance = self.get(call, account) + amount
            if balance < 0:
                raise Aborted("too little money")
            self.made(self.world.op(call, *account, f"set balance {balance}"))
        except Aborted:
            self.end_call(call, account[0], False)
            raise
        self.end_call(call, account[0], True)

    def move(self, payer, payee, amount):
        """Moves the money in a new top action. If a handler is aborted, so is the top action."""
        (top,) = self.made(self.world.top(ACCOUNTS[payer][0]))
        try:
            self.change(top, ACCOUNTS[payer], -amount)
            self.change(top, ACCOUNTS[payee], amount)
        except Aborted:
            self.made(self.world.abort(top))
            self.tell_all(top)
            raise
        return top

    def prepare(self, top):
        """Closes the top action, and lets the branches vote. A no ends the votes."""
        self.made(self.world.close_top(top))
        return all(self.world.prepare(branch, top).line == "vote yes" for branch in BRANCHES)

    def commit(self, top):
        """Commits the top action by two phases, or aborts it after a no."""
        yes = self.prepare(top)
        self.made(self.world.decide(top) if yes else self.world.abort(top))
        self.tell_all(top)
        return yes

    def pay(self, payer, payee, amount):
        try:
            top = self.move(payer, payee, amount)
            outcome = "paid" if self.commit(top) else "aborted by a vote"
        except Aborted as why:
            outcome = f"aborted, {why}"
        print(f"{payer} pays {payee} {amount}: {outcome}")

    def pay_over_a_crash(self, payer, payee, amount):
        """The payee's branch crashes between the two phases. Before that, another payment has to wait."""
        top = self.move(payer, payee, amount)
        assert self.prepare(top)
        print(f"{payer} pays {payee} {amount}: both branches vote yes")
        self.pay("ben", "dan", 45)
        branch = ACCOUNTS[payee][0]
        self.made(self.world.crash(branch))
        self.made(self.world.recover(branch))
        print(f"branch {branch} crashes and recovers")
        self.made(self.world.decide(top))
        self.tell_all(top)
        print(f"{payer} pays {payee} {amount}: paid")

    def show(self):
        (top,) = self.made(self.world.top(1))
        balances = {}
        for owner, account in ACCOUNTS.items():
            (call,) = self.made(self.world.call(top, account[0]))
            balances[owner] = self.get(call, account)
            self.end_call(call, account[0], True)
        assert self.commit(top)
        for owner, balance in balances.items():
            print(f"{owner} has {balance}")


def first(folder):
    bank = Bank(argus.World.over(folder, SETUP))
    bank.pay("ann", "cleo", 30)
    bank.pay("ben", "dan", 45)
    bank.pay_over_a_crash("cleo", "ben", 25)
    assert bank.prepare(bank.move("ben", "dan", 45))
    print("the bank stops before ben pays dan 45 is decided, and opens again", flush=True)
    os._exit(0)


def second(folder):
    with argus.World.reopen(folder, SETUP) as world:
        bank = Bank(world)
        bank.pay("ben", "dan", 45)
        bank.show()


def main(folder):
    if (pathlib.Path(folder) / "g1.json").exists():
        second(folder)
    else:
        first(folder)


main(sys.argv[1])
