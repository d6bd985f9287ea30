/* A second, independent recorder; see README.md. */
#include "jobs.h"
#include "wire.h"

#include <stdio.h>

int main(int argc, char **argv)
{
    wire_start();
    if (argc == 1)
        return job_frames();
    if (argc == 2 && strcmp(argv[1], "probe") == 0)
        return job_probe();
    fputs("usage: second [probe]\n", stderr);
    return 2;
}
