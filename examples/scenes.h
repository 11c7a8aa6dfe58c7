/*
 * The scenes.  The first plugs in both microphones.  The others find all
 * buffers empty, ports 1 and 2 Enabled, the others Powered-off and no change
 * bit set; all but the last, which unplugs a microphone, leave the ports so.
 */

#ifndef SCENES_H
#define SCENES_H

/* port_scenes.c */
void plugged_in(void);
void second_reset(void);
void power_off(void);

/* take_scenes.c */
void long_takes(void);
void lane_limit(void);
void clear_in_mid_transfer(void);
void clear_for_the_other(void);
void short_take(void);
void out_beside_in(void);
void unplugged(void);

#endif
