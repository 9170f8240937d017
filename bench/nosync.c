/* Syncs that do nothing, for laying a large store quickly: cc -shared -o nosync.so bench/nosync.c, then LD_PRELOAD. */
int fsync(int file) { (void)file; return 0; }
int fdatasync(int file) { (void)file; return 0; }
