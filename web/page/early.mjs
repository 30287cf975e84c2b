// Runs in the head of the page: the worker of the first report starts while the browser reads the rest.
import { startWorker } from './start.mjs';

const worker = startWorker();
window.earlyWorker = worker;
// If it fails, the page starts another one, and shows why that one fails.
worker.onerror = () => { window.earlyWorker = undefined; };
