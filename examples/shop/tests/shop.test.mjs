// The same by Node's test runner.
import assert from 'node:assert';
import test from 'node:test';

const routes = process.env.LAMBDA_LOCAL_ROUTES;

test('an order has its price', async () => {
  const answer = await fetch(`${routes}/orders`, {
    method: 'POST', body: JSON.stringify({ article: 'cup', count: 3 }),
  });
  assert.equal(answer.status, 201);
  assert.equal((await answer.json()).cents, 2700);
});

test('the price list by itself', async () => {
  const url = `${process.env.AWS_ENDPOINT_URL_LAMBDA}/2015-03-31/functions/PricesFunction/invocations`;
  const answer = await fetch(url, { method: 'POST', body: '{"article":"tea"}' });
  assert.deepEqual(await answer.json(), { article: 'tea', cents: 450 });
});
