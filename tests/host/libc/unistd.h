#ifndef HOST_UNISTD_H
#define HOST_UNISTD_H
unsigned alarm(unsigned seconds);
#endif
