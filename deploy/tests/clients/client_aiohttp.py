"""aiohttp: client_aiohttp.py MODE URL. Prints the status and the milliseconds of each request, as JSON. MODE: requests or expect."""
import asyncio
import json
import sys
import time

import aiohttp

FIELDS = {"Register-Party": "1", "Register-Role": "stateAdministrator"}


async def send(session, url, found):
    began = time.perf_counter()
    async with session.get(url, headers=FIELDS) as reply:
        await reply.read()
        found.append((reply.status, (time.perf_counter() - began) * 1000))


async def main(mode, url):
    if mode == "expect":
        async with aiohttp.ClientSession() as session:
            try:
                body = json.dumps({"kind": "naturalPerson", "name": "aiohttp"})
                async with session.post(url, data=body, headers=FIELDS, expect100=True) as reply:
                    print(f"status {reply.status}")
            except aiohttp.ClientError as error:
                print(repr(error))
        return
    found = []
    async with aiohttp.ClientSession() as one, aiohttp.ClientSession() as other:
        await send(one, url, [])
        for number in range(50):
            await send((one, other)[number % 2], url, found)
        for _ in range(10):
            await asyncio.gather(*(send((one, other)[number % 2], url, found) for number in range(5)))
    print(json.dumps(found))


asyncio.run(main(*sys.argv[1:]))
