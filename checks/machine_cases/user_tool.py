"""A program for the Linux driver vme_user in Python: sets window m1 to a board, and writes to it."""

import fcntl
import os
import struct
import sys

# _IOW(0xAE, 4, struct vme_master): 32 bytes
VME_SET_MASTER = 0x4020AE04
VME_A32, VME_SCT, VME_USER, VME_DATA, VME_D32 = 0x4, 0x1, 0x2000, 0x8000, 0x4

device = os.open("/dev/bus/vme/m1", os.O_RDWR)
fcntl.ioctl(device, VME_SET_MASTER, struct.pack("=IQQIII", 1, 0x08002000, 4096, VME_A32, VME_SCT | VME_USER | VME_DATA, VME_D32))
os.pwrite(device, sys.argv[1].encode(), 64)
if os.pread(device, len(sys.argv[1]), 64) != sys.argv[1].encode():
    sys.exit("other bytes were read")
