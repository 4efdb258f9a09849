"""A page on this machine by which one edits a circuit and sees at once what changed.

    python3 -m stabsim.page [FILE]

It holds one session of the program, which any number of tabs see. It asks for aiohttp.
"""
