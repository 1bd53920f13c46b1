#!/usr/bin/env node
/** The command: `npx polytwkb pack|unpack|show`. */
import {run} from './run.js';

process.exitCode = await run(process.argv.slice(2));
