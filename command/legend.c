#include "page.h"

struct sign {
    const char *drawing; /* 44 wide, 28 high */
    const char *meaning;
};

static const struct sign signs[] = {
    {"<rect class='token' x='15' y='0' width='14' height='28'/><circle class='mark' cx='22' cy='14' r='4.5'/>",
     "has the token; a dot is a synchronising step"},
    {"<path class='pass' d='M10 2V12H34V20'/><path class='pass-end' d='M34 26l-6 -6h12z'/>", "the token goes to the next"},
    {"<path class='listed' d='M22 0V28'/>", "in this round&#8217;s list, its token is still to come"},
    {"<path class='next' d='M22 0V28'/>", "in the next round&#8217;s list"},
    {"<rect class='runs' x='18' y='0' width='8' height='16'/><path class='arrival' d='M22 24l-8 -12h16z'/>"
     "<rect class='fence' x='0' y='23' width='44' height='5'/>",
     "own steps, arrival, and the fence once all are there"},
    {"<rect class='condition' x='15' y='1' width='14' height='26'/>", "waits on a condition"},
    {"<rect class='barrier' x='15' y='1' width='14' height='26'/>", "is queued at a barrier"},
    {"<path class='asleep' d='M22 2V28'/>", "asleep until it is started"},
    {"<path class='release' d='M2 14H40'/><path class='release-end' d='M42 14l-8 -5v10z'/>",
     "wakes, releases or starts a worker"},
    {"<rect class='token' x='15' y='0' width='14' height='24'/><rect class='mark' x='18' y='6' width='9' height='9'/>"
     "<path class='leaves' d='M10 24h24'/>",
     "exits"},
    {"<rect class='token' x='15' y='0' width='14' height='28'/><circle class='mark cross-ground' cx='22' cy='14' r='9'/>"
     "<path class='cross' d='M17 9l10 10m0 -10l-10 10'/>",
     "FAILED: leaves for good, what it has not committed is lost"},
};

void legend_write(struct bytes *page)
{
    bytes_print(page, "<ul class='legend' aria-label='Signs of the picture'>\n");
    for (size_t i = 0; i < sizeof signs / sizeof signs[0]; i++)
        bytes_print(page, "<li><svg viewBox='0 0 44 28' width='44' height='28' aria-hidden='true'>%s</svg><span>%s</span></li>\n",
                    signs[i].drawing, signs[i].meaning);
    bytes_print(page, "</ul>\n");
}
