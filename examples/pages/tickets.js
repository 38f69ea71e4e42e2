/** Tickets that several pages sell, whose number is in a database that any of them may write at any time. */

/** What a sale takes beside the database, in milliseconds. */
const PAYING = 5;

async function read() {
  return (await fetch("/database")).json();
}

function write(tickets) {
  return fetch("/database", { method: "PUT", body: JSON.stringify(tickets) });
}

/** Sells one ticket and answers how many are left. Nobody may sell between what it reads and what it writes. */
export function sellTicket(locks) {
  return locks.request("tickets", async () => {
    const tickets = await read();
    await new Promise((resolve) => setTimeout(resolve, PAYING));
    await write(tickets - 1);
    return tickets - 1;
  });
}

/** How many tickets are left, when nobody is selling one. Many pages may look at once. */
export function ticketsLeft(locks) {
  return locks.request("tickets", { mode: "shared" }, read);
}

/** Has a page's button sell ten tickets, and its output show how many are left. */
export async function show(locks) {
  const [left, button] = ["left", "sell"].map((it) => document.getElementById(it));
  button.onclick = async () => {
    button.disabled = true;
    for (let sold = 0; sold < 10; sold += 1) {
      left.textContent = await sellTicket(locks);
    }
    left.textContent = await ticketsLeft(locks);
    button.disabled = false;
  };
  left.textContent = await ticketsLeft(locks);
  button.disabled = false;
}
