"""Four sessions at a time, by asyncio: each lists its drive, on either processor. Run it in the folder where `examples/make-disks` was run."""

import asyncio

from cpmhost import AsyncHost


async def list_drive(host: AsyncHost, cpu: str, drive: str) -> str:
    async with await host.open(cpu=cpu, drives=[drive]) as session:
        await session.type("DIR\r")
        await session.expect("DIR\r")
        await session.expect("\r\nA>")
        return session.before.strip()


async def main() -> None:
    async with AsyncHost(folder="examples/out") as host:
        asked = [(cpu, drive) for cpu in ("8080", "z80") for drive in ("guess.img", "copy.img")]
        shown = await asyncio.gather(*(list_drive(host, *it) for it in asked))
    for (cpu, drive), text in zip(asked, shown):
        print(f"{cpu} {drive}: {text}")


if __name__ == "__main__":
    asyncio.run(main())
