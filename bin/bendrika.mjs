#!/usr/bin/env node
// `node bin/bendrika.mjs` is `bendrika` wherever node 16 or later runs.
import { runHere } from '../web/node.mjs';

runHere('bendrika');
