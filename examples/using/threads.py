from concurrent.futures import ThreadPoolExecutor

import weblocks

printed = 0


def print_pages(locks, pages):
    global printed
    for _ in range(pages):
        with locks.request("printer"):
            printed += 1


with weblocks.sync.connect("ws://127.0.0.1:8080", origin="https://a.test") as locks:
    with ThreadPoolExecutor(4) as threads:
        for _ in range(4):
            threads.submit(print_pages, locks, 25)
    print(printed, "pages")
