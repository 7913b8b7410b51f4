/*
 * Signing of images with HSS/LMS (RFC 8554) by mkimage.
 *
 * An HSS key has a state, of which no part may be used twice, so a program of
 * its own has it: mkimage runs
 *
 *	mkimage-lms-sign KEY
 *
 * or what MKIMAGE_LMS_SIGN names, where KEY is the key's directory and name
 * ("-k", "key-name-hint") or its file ("-G"). It gets the message as its input
 * and has to write the signature to its output. KEY.pub has the public key.
 */
#include "mkimage.h"
#include <image.h>
#include <sys/wait.h>
#include "lms-image.h"

/* A signature that this mkimage made. It signs again, from the beginning, each
 * time that a signature or public key finds no room: these are taken then, so
 * that no more of the key's indices are used.
 */
struct made {
	struct made *next;
	char key[1024];
	uint8_t *message;
	size_t message_len;
	uint sig_len;
	uint8_t sig[LMS_LONGEST_SIGNATURE_LEN];
};

static int key_path(const struct image_sign_info *info, char *path, int size,
		    const char *suffix)
{
	int len;

	if (info->keyfile)
		len = snprintf(path, size, "%s%s", info->keyfile, suffix);
	else if (info->keydir && info->keyname)
		len = snprintf(path, size, "%s/%s%s", info->keydir,
			       info->keyname, suffix);
	else
		return -EINVAL;

	return len < size ? 0 : -ENAMETOOLONG;
}

static int read_public_key(const struct image_sign_info *info, uint8_t *key)
{
	char path[1024];
	FILE *file;
	size_t len;
	int ret;

	ret = key_path(info, path, sizeof(path), ".pub");
	if (ret)
		return ret;

	file = fopen(path, "rb");
	if (!file) {
		fprintf(stderr, "Can't open '%s': %s\n", path, strerror(errno));
		return -ENOENT;
	}
	len = fread(key, 1, LMS_PUBLIC_KEY_LEN, file);
	if (len != LMS_PUBLIC_KEY_LEN || fgetc(file) != EOF) {
		fprintf(stderr, "'%s' is no HSS public key\n", path);
		ret = -EINVAL;
	}
	fclose(file);

	return ret;
}

/* Runs the program that signs. */
static int run(const char *key, int message, int signature)
{
	const char *program = getenv("MKIMAGE_LMS_SIGN");
	int status;
	pid_t pid;

	if (!program)
		program = "mkimage-lms-sign";

	pid = fork();
	if (pid < 0)
		return -errno;
	if (!pid) {
		if (dup2(message, 0) == 0 && dup2(signature, 1) == 1)
			execlp(program, program, key, NULL);
		fprintf(stderr, "Can't run '%s': %s\n", program,
			strerror(errno));
		_exit(127);
	}
	if (waitpid(pid, &status, 0) != pid || status) {
		fprintf(stderr, "'%s' didn't sign by '%s'\n", program, key);
		return -EIO;
	}

	return 0;
}

/* Has the message signed, from one file to another. */
static int sign_between(struct made *made, FILE *in, FILE *out)
{
	int ret;

	if (fwrite(made->message, 1, made->message_len, in) !=
	    made->message_len || fflush(in))
		return -EIO;
	rewind(in);

	ret = run(made->key, fileno(in), fileno(out));
	if (ret)
		return ret;

	rewind(out);
	made->sig_len = fread(made->sig, 1, sizeof(made->sig), out);

	return 0;
}

/* Has the message signed, and looks whether the public key accepts. */
static int sign(const struct image_sign_info *info, struct made *made)
{
	uint8_t public_key[LMS_PUBLIC_KEY_LEN];
	FILE *in, *out;
	int ret;

	ret = read_public_key(info, public_key);
	if (ret)
		return ret;

	in = tmpfile();
	out = tmpfile();
	ret = in && out ? sign_between(made, in, out) : -EIO;
	if (in)
		fclose(in);
	if (out)
		fclose(out);
	if (ret)
		return ret;

	if (!lms_verify(public_key, sizeof(public_key), made->message,
			made->message_len, made->sig, made->sig_len)) {
		fprintf(stderr, "'%s.pub' doesn't accept the signature\n",
			made->key);
		return -EINVAL;
	}

	return 0;
}

/* Joins the regions, as the message. */
static int join(struct made *made, const struct image_region region[],
		int region_count)
{
	size_t len = 0;
	int i;

	for (i = 0; i < region_count; i++)
		len += region[i].size;
	made->message = malloc(len + 1);
	if (!made->message)
		return -ENOMEM;

	for (i = 0; i < region_count; i++) {
		memcpy(made->message + made->message_len, region[i].data,
		       region[i].size);
		made->message_len += region[i].size;
	}

	return 0;
}

/* What was made of the same key and message, or NULL. */
static struct made *find(struct made *all, const struct made *made)
{
	for (; all; all = all->next)
		if (!strcmp(all->key, made->key) &&
		    all->message_len == made->message_len &&
		    !memcmp(all->message, made->message, made->message_len))
			break;

	return all;
}

int lms_image_sign(struct image_sign_info *info,
		   const struct image_region region[], int region_count,
		   uint8_t **sigp, uint *sig_len)
{
	static struct made *all;
	struct made *made, *old = NULL;
	int ret;

	made = calloc(1, sizeof(*made));
	if (!made)
		return -ENOMEM;

	ret = key_path(info, made->key, sizeof(made->key), "");
	if (!ret)
		ret = join(made, region, region_count);
	if (!ret) {
		old = find(all, made);
		ret = old ? 0 : sign(info, made);
	}
	if (old || ret) {
		free(made->message);
		free(made);
		if (ret)
			return ret;
		made = old;
	} else {
		made->next = all;
		all = made;
	}

	*sigp = malloc(made->sig_len);
	if (!*sigp)
		return -ENOMEM;
	memcpy(*sigp, made->sig, made->sig_len);
	*sig_len = made->sig_len;

	return 0;
}

static int add_key(const struct image_sign_info *info, void *fdt,
		   const uint8_t *public_key)
{
	char name[100];
	int keys, node, ret;

	keys = fdt_subnode_offset(fdt, 0, FIT_SIG_NODENAME);
	if (keys == -FDT_ERR_NOTFOUND)
		keys = fdt_add_subnode(fdt, 0, FIT_SIG_NODENAME);
	if (keys < 0)
		return keys;

	snprintf(name, sizeof(name), "key-%s",
		 info->keyname ? info->keyname : "lms");
	node = fdt_subnode_offset(fdt, keys, name);
	if (node == -FDT_ERR_NOTFOUND)
		node = fdt_add_subnode(fdt, keys, name);
	if (node < 0)
		return node;

	ret = fdt_setprop(fdt, node, LMS_PUBLIC_KEY_PROP, public_key,
			  LMS_PUBLIC_KEY_LEN);
	if (!ret)
		ret = fdt_setprop_string(fdt, node, FIT_ALGO_PROP, info->name);
	if (!ret && info->keyname)
		ret = fdt_setprop_string(fdt, node, FIT_KEY_HINT,
					 info->keyname);
	if (!ret && info->require_keys)
		ret = fdt_setprop_string(fdt, node, FIT_KEY_REQUIRED,
					 info->require_keys);

	return ret ? ret : node;
}

int lms_image_add_verify_data(struct image_sign_info *info, void *keydest)
{
	uint8_t public_key[LMS_PUBLIC_KEY_LEN];
	int ret;

	ret = read_public_key(info, public_key);
	if (ret)
		return ret;

	ret = add_key(info, keydest, public_key);
	if (ret == -FDT_ERR_NOSPACE)
		return -ENOSPC;
	if (ret < 0) {
		fprintf(stderr, "Can't add the public key: %s\n",
			fdt_strerror(ret));
		return -EIO;
	}

	return ret;
}
