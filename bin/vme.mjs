#!/usr/bin/env node
// `node bin/vme.mjs` is `vme` wherever node 16 or later runs.
import { runHere } from '../web/node.mjs';

runHere('vme');
