import asyncio

import weblocks


async def main():
    async with weblocks.connect("ws://127.0.0.1:8080", origin="https://a.test") as locks:
        async with locks.request("printer", timeout=5) as lock:
            print(f"{lock.name} is mine, {lock.mode}")


asyncio.run(main())
