"""Two clients sell from one stock. The second has a conflict and tries again; the first listens to the sales."""
import sys

import mdsal

STOCK = ["config", "/depot:depot/stock"]


def begin(broker, client):
    """Begins a transaction in slot 0, and returns the stock that it sees."""
    broker.step(client, ["begin", 0, 0, "rw"])
    return int(broker.step(client, ["read", 0, *STOCK]).removeprefix("data "))


def sell(broker, client, stock):
    """Takes one from the stock in the transaction of slot 0, and returns the outcome."""
    broker.step(client, ["put", 0, *STOCK, stock - 1])
    broker.step(client, ["submit", 0])
    outcome = broker.step(client, ["settle", 0])
    print(f"{client}: {outcome}")
    return outcome


def main():
    with open(sys.argv[1], "rb") as script, mdsal.Broker(script.read()) as broker:
        broker.step(0, ["listen", 0, 0, *STOCK])
        first, second = begin(broker, 0), begin(broker, 1)
        sell(broker, 0, first)
        while sell(broker, 1, second).startswith("conflict "):
            second = begin(broker, 1)
        print(f"0: {broker.step(0, ['take', 0])}")
        print(broker.report(), end="")


if __name__ == "__main__":
    main()
