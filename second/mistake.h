/* A build with MISTAKE 1 to 33 makes one mistake that looks right: README.md
   lists them. */
#ifndef MISTAKE_H
#define MISTAKE_H

#ifndef MISTAKE
#define MISTAKE 0
#endif

#endif
