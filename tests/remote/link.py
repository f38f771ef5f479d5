#!/usr/bin/env python3
"""A slow link to a server: passes connections on, with 5 ms each way and 100 Mbit/s for all of them together in each way.

    link.py ADDRESS PORT TO_PORT    it listens there, and the server is at 127.0.0.1

The kernel's own (netem) is a module that many machines lack.
"""
import asyncio
import sys

DELAY = 0.005
BYTES_PER_SECOND = 100e6 / 8
PART = 1 << 14


class Way:
    """One direction of the link."""

    def __init__(self) -> None:
        self.free = 0.0

    async def carry(self, reader: asyncio.StreamReader, writer: asyncio.StreamWriter) -> None:
        """Carries all that comes, in its order; the sender waits until the link has taken a part."""
        loop = asyncio.get_running_loop()
        try:
            while part := await reader.read(PART):
                self.free = max(self.free, loop.time()) + len(part) / BYTES_PER_SECOND
                loop.call_at(self.free + DELAY, writer.write, part)
                await asyncio.sleep(self.free - loop.time())
        finally:
            loop.call_later(2 * DELAY, writer.close)


async def main(address: str, port: int, to_port: int) -> None:
    there, back = Way(), Way()

    async def joined(reader: asyncio.StreamReader, writer: asyncio.StreamWriter) -> None:
        await asyncio.sleep(2 * DELAY)
        try:
            of_server, to_server = await asyncio.open_connection("127.0.0.1", to_port)
        except OSError:
            return writer.close()
        await asyncio.gather(there.carry(reader, to_server), back.carry(of_server, writer), return_exceptions=True)

    async with await asyncio.start_server(joined, address, port) as server:
        await server.serve_forever()


asyncio.run(main(sys.argv[1], int(sys.argv[2]), int(sys.argv[3])))
