// The inputs that the page offers.

export const EXAMPLES = [
  { name: 'Replies of RESP3: a map with a double, a set', text: '%2\r\n+name\r\n$5\r\nwidth\r\n+value\r\n,1.5\r\n~2\r\n:1\r\n:2\r\n#t\r\n_\r\n' },
  { name: 'A length that is wrong', text: '+OK\r\n$3\r\nhello\r\n' },
  { name: 'A pipeline of commands with HELLO 3', text: '*2\r\n$5\r\nHELLO\r\n$1\r\n3\r\n*3\r\n$3\r\nSET\r\n$1\r\na\r\n$5\r\nhello\r\n*2\r\n$3\r\nGET\r\n$1\r\na\r\n' },
  { name: 'A push between two replies', text: '$5\r\nhello\r\n>3\r\n+message\r\n$4\r\nnews\r\n$2\r\nhi\r\n:1\r\n' },
  { name: 'Streamed forms', text: '*?\r\n:1\r\n$?\r\n;4\r\nHell\r\n;5\r\no wor\r\n;1\r\nd\r\n;0\r\n:2\r\n.\r\n' },
  { name: 'An attribute, a big number, a verbatim string', text: '|1\r\n+ttl\r\n:3600\r\n(3492890328409238509324850943850943825024385\r\n=15\r\ntxt:Some string\r\n' },
  { name: 'A line end without CR', text: '*1\r\n$4\r\nPING\n' },
  { name: 'An inline command', text: 'PING\r\n' },
];

/** The conversation that the page shows at first. */
export const TALK = {
  sent: '*2\\r\\n$5\\r\\nHELLO\\r\\n$1\\r\\n3\\r\\n\n*3\\r\\n$3\\r\\nSET\\r\\n$1\\r\\na\\r\\n$1\\r\\n1\\r\\n\n*2\\r\\n$3\\r\\nGET\\r\\n$1\\r\\na\\r\\n',
  received: '%1\\r\\n$5\\r\\nproto\\r\\n:3\\r\\n\n+OK\\r\\n\n>2\\r\\n+invalidate\\r\\n_\\r\\n\n$1\\r\\n1\\r\\n\n:5\\r\\n',
};
