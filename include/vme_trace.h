/* vme_trace.h: what libvme_trace adds to libvme_machine, a bus log of each machine that a program opens.
 *
 * libvme_trace has the functions of vme_machine.h, with a log. A program gets it in one of three ways:
 *
 *   VME_TRACE=run.log LD_PRELOAD=libvme_trace.so.1 ./program    if it is linked to libvme_machine.so
 *   cc program.c $(pkg-config --cflags --libs vme_trace)         in place of libvme_machine
 *   LIBVME_MACHINE=libvme_trace.so.1 python3 program.py          for pyvme
 *
 * VME_TRACE, or a call of vme_trace_to, names the log of the first machine; the second has this name with .2 behind it, and so on.
 * Beside each log NAME is a configuration file NAME.toml with the boards, a copy of the file where vme_machine_load has opened the machine:
 * `bendrika judge --zero NAME.toml NAME` judges the run.
 *
 * A log has a line for each datum of a transfer, two for a read-modify-write, and a line for each access by a local port that moved
 * bytes, two for a modify. A line begins with the nanoseconds since the machine was opened. Lines stand in the order of the events:
 * each call that makes an event is made with a lock of its machine held, and takes the place of its line before it gives the lock
 * back. So no two calls of a traced machine overlap, and none returns VME_BUSY. The bytes and the answer of a datum are known at the
 * end of its transfer: until then its line is a comment. Those of a lock or a mailbox are known at once.
 *
 * What a log shows is what this layer writes; nothing of it is proved. It trusts that the lock orders the calls, that a reply is
 * the one that the program gets, and that the library makes the event of a step within the call. Address, strobes and lanes are the
 * lines of the request (vme_request_lines of vme.h), since a machine has no lines of its own.
 *
 * A log that cannot be written is reported on standard error, once, and the machine goes on without it; so it does after 10 s in
 * which a lock is held, as by a process that was killed in a call. Processes that share a machine all use libvme_trace, as they all
 * use one build of the library; a segment has room for 5,000 bytes more a processor.
 */
#ifndef VME_TRACE_H
#define VME_TRACE_H

#ifdef __cplusplus
extern "C" {
#endif

/* Names the log of the machines that are opened from now on, or none if path is null. Without a call VME_TRACE names it. */
void vme_trace_to(const char *path);

#ifdef __cplusplus
}
#endif

#endif
