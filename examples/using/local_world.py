import asyncio

import weblocks


async def main():
    with weblocks.local() as world:
        async with (
            world.connect(origin="https://a.test") as anna,
            world.connect(origin="https://a.test") as ben,
        ):
            async with anna.request("printer"):
                async with ben.request("printer", if_available=True) as lock:
                    print("free" if lock else "taken")


asyncio.run(main())
