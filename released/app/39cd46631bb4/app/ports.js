// @ts-check
// The stations of a match: each is a page, which has a port of its own in the match's network.

/**
 * The ports of the stations.
 * @type {Record<string, number>}
 */
export const PORTS = { a: 47_101, b: 47_102, 1: 47_103, 2: 47_104 };
