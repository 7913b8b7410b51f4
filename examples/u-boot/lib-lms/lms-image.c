/*
 * Verification of images signed with HSS/LMS (RFC 8554), in U-Boot and in its
 * host tools: the glue between struct crypto_algo and lms_verify.c.
 *
 * The signed message is the regions that U-Boot gives, one after the other.
 * lms_verify.c hashes them where they lie, after a head of its own, by which a
 * signature doesn't rest on SHA-256 being free of collisions. One of the
 * regions' hash would.
 */
#ifdef USE_HOSTCC
#include "mkimage.h"
#else
#include <malloc.h>
#include <linux/errno.h>
#include <linux/string.h>
#endif
#include <image.h>
#include <linux/libfdt.h>
#include <u-boot/rsa.h>
#include "lms-image.h"

/* A signature and the regions that are said to be signed. */
struct signed_pieces {
	const struct lms_piece *pieces;
	int count;
	const uint8_t *sig;
	uint sig_len;
};

/* Whether the key at the node of the control device tree is one of this
 * algorithm, and accepts.
 */
static bool accepts(const struct image_sign_info *info, int node,
		    const struct signed_pieces *it)
{
	uint8_t head[LMS_MESSAGE_HEAD_LEN];
	const char *algo;
	const void *key;
	int len;

	algo = fdt_getprop(info->fdt_blob, node, FIT_ALGO_PROP, NULL);
	key = fdt_getprop(info->fdt_blob, node, LMS_PUBLIC_KEY_PROP, &len);
	if (!algo || strcmp(algo, info->name) || !key)
		return false;

	if (lms_verify_pieces(key, len, it->pieces, it->count, it->sig,
			      it->sig_len))
		return true;

	if (!lms_message_head(key, len, it->sig, it->sig_len, head))
		printf(" (malformed, or not of this key's kind or upper levels) ");

	return false;
}

static bool some_key_accepts(const struct image_sign_info *info,
			     const struct signed_pieces *it)
{
	int keys, node;

	if (info->required_keynode != -1)
		return accepts(info, info->required_keynode, it);

	keys = fdt_subnode_offset(info->fdt_blob, 0, FIT_SIG_NODENAME);
	if (keys < 0)
		return false;
	fdt_for_each_subnode(node, info->fdt_blob, keys)
		if (accepts(info, node, it))
			return true;

	return false;
}

int lms_image_verify(struct image_sign_info *info,
		     const struct image_region region[], int region_count,
		     uint8_t *sig, uint sig_len)
{
	struct lms_piece *pieces;
	struct signed_pieces it;
	int i, ret = -EPERM;

	if (!info->fdt_blob || region_count < 1)
		return -EINVAL;

	pieces = calloc(region_count, sizeof(*pieces));
	if (!pieces)
		return -ENOMEM;

	for (i = 0; i < region_count; i++) {
		if (region[i].size < 0)
			goto out;
		pieces[i].bytes = region[i].data;
		pieces[i].len = region[i].size;
	}

	it.pieces = pieces;
	it.count = region_count;
	it.sig = sig;
	it.sig_len = sig_len;
	if (some_key_accepts(info, &it))
		ret = 0;
out:
	free(pieces);

	return ret;
}

#ifndef USE_HOSTCC
U_BOOT_CRYPTO_ALGO(lms) = {
	.name = "lms",
	.key_len = LMS_PUBLIC_KEY_LEN,
	.verify = lms_image_verify,
};

#if !CONFIG_IS_ENABLED(RSA_VERIFY)
/* Of each signature U-Boot asks for a padding, by this name where the FIT
 * names none, though only RSA has one.
 */
static int no_padding(struct image_sign_info *info, const uint8_t *pad,
		      int pad_len, const uint8_t *hash, int hash_len)
{
	return -EINVAL;
}

U_BOOT_PADDING_ALGO(lms_none) = {
	.name = RSA_DEFAULT_PADDING_NAME,
	.verify = no_padding,
};
#endif
#endif
