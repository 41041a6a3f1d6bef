// The price list.
const CENTS = { tea: 450, cup: 900 };

exports.handler = async (event) => {
  if (!(event.article in CENTS)) throw new Error(`no price for ${event.article}`);
  return { article: event.article, cents: CENTS[event.article] };
};
