import { connect } from "weblocks";

const locks = await connect({ url: "ws://127.0.0.1:8080", origin: "https://a.test" });
await locks.request("printer", async (lock) => {
  console.log(`${lock.name} is mine, ${lock.mode}`);
});
await locks.close();
