"""Requests at a fixed rate, whether or not earlier ones are answered, and how long each waits."""

import asyncio
import statistics
import time

# Longer waits count as failures.
PATIENCE = 60


async def talk(port, text):
    """The status of a response."""
    reader, writer = await asyncio.open_connection("127.0.0.1", port)
    writer.write(text)
    answer = await reader.read()
    writer.close()
    return int(answer[9:12])


async def ask(port, text):
    """The status of a response, None without one, and the milliseconds from the connection on."""
    began = time.monotonic()
    try:
        status = await asyncio.wait_for(talk(port, text), PATIENCE)
    except (OSError, ValueError, asyncio.TimeoutError):
        status = None
    return status, 1000 * (time.monotonic() - began)


async def send(port, text_of, rate, is_over, answers):
    """Sends request k at k / rate seconds until it is over, and keeps the answers."""
    began, sent = time.monotonic(), []
    while not is_over():
        sent.append(asyncio.create_task(ask(port, text_of(len(sent)))))
        await asyncio.sleep(max(0, began + len(sent) / rate - time.monotonic()))
    answers += await asyncio.gather(*sent)


async def drip(port, head, every, is_over):
    """Sends a head, and then a blank at a time until the other side closes the connection."""
    try:
        _, writer = await asyncio.open_connection("127.0.0.1", port)
        writer.write(head)
        while not is_over():
            writer.write(b" ")
            await writer.drain()
            await asyncio.sleep(every)
        writer.close()
    except OSError:
        pass


def for_seconds(seconds):
    """Whether so many seconds have passed since this call."""
    end = time.monotonic() + seconds
    return lambda: time.monotonic() > end


def beside(port, streams, is_over, others=()):
    """The answers of each stream, of which each has a function of the request with a number, and how
    many it sends in a second; `others` are coroutines that run meanwhile."""
    answers = [[] for _ in streams]

    async def all_of_them():
        sending = [send(port, *own, is_over, found) for own, found in zip(streams, answers)]
        await asyncio.gather(*sending, *others)

    asyncio.run(all_of_them())
    return answers


def burst(port, texts, probe):
    """The answer to a request that is sent as soon as all of these are, and those to them."""

    async def all_of_them():
        sent = [asyncio.create_task(ask(port, text)) for text in texts]
        await asyncio.sleep(0.05)
        own = await ask(port, probe)
        return own, await asyncio.gather(*sent)

    return asyncio.run(all_of_them())


def waits(answers):
    """The median wait, that which 95 % don't exceed, and the longest, in milliseconds."""
    found = sorted(wait for _, wait in answers)
    return statistics.median(found), found[len(found) * 95 // 100], found[-1]


def failed(answers):
    """How many responses aren't a success."""
    return sum(status is None or status >= 300 for status, _ in answers)
