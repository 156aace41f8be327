/* The places of the settings in an array of them. A plan's names are these, and SEED. */
#ifndef SETTINGS_H
#define SETTINGS_H

enum setting {
    SADDR,
    SPTCH,
    DADDR,
    DPTCH,
    OFFSET,
    WSTART,
    WEND,
    DYDX,
    COLOR0,
    COLOR1,
    CONTROL,
    PSIZE,
    PMASK,
    SEED
};

#endif
