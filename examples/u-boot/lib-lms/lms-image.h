/* HSS/LMS signatures (RFC 8554) as a crypto_algo of images. */
#ifndef _LMS_IMAGE_H
#define _LMS_IMAGE_H

#include <image.h>

/* lms_verify.c is compiled beside this. */
#ifndef LMS_PORTABLE
#define LMS_PORTABLE
#endif
#include "lms.h"

/* The property of a key's node that holds the HSS public key. */
#define LMS_PUBLIC_KEY_PROP	"lms,public-key"

int lms_image_verify(struct image_sign_info *info,
		     const struct image_region region[], int region_count,
		     uint8_t *sig, uint sig_len);

/* The host's tools alone have these. */
int lms_image_sign(struct image_sign_info *info,
		   const struct image_region region[], int region_count,
		   uint8_t **sigp, uint *sig_len);
int lms_image_add_verify_data(struct image_sign_info *info, void *keydest);

#endif
