/* Times GLib on the bytes of a file: gvariant_glib TYPE FILE
 * decode visits each value down to strings, numbers and arrays of bytes; encode builds the value anew and serialises it. */
#include <glib.h>
#include <stdio.h>
#include <string.h>
#include <time.h>

static double now(void)
{
	struct timespec t;
	clock_gettime(CLOCK_PROCESS_CPUTIME_ID, &t);
	return t.tv_sec * 1e3 + t.tv_nsec / 1e6;
}

static gsize visit(GVariant *value)
{
	gsize size = 0;
	if (!g_variant_is_container(value) || g_variant_is_of_type(value, G_VARIANT_TYPE("ay"))) {
		g_variant_get_data(value);
		return g_variant_get_size(value);
	}
	for (gsize i = 0, n = g_variant_n_children(value); i < n; i++) {
		GVariant *child = g_variant_get_child_value(value, i);
		size += visit(child);
		g_variant_unref(child);
	}
	return size;
}

/* A value of its own with the same contents. */
static GVariant *copy(GVariant *value)
{
	if (g_variant_is_of_type(value, G_VARIANT_TYPE("ay"))) {
		gsize n;
		const guchar *bytes = g_variant_get_fixed_array(value, &n, 1);
		return g_variant_new_fixed_array(G_VARIANT_TYPE("y"), bytes, n, 1);
	}
	if (g_variant_is_of_type(value, G_VARIANT_TYPE("s")))
		return g_variant_new_string(g_variant_get_string(value, NULL));
	GVariantBuilder builder;
	g_variant_builder_init(&builder, g_variant_get_type(value));
	for (gsize i = 0, n = g_variant_n_children(value); i < n; i++) {
		GVariant *child = g_variant_get_child_value(value, i);
		g_variant_builder_add_value(&builder, copy(child));
		g_variant_unref(child);
	}
	return g_variant_builder_end(&builder);
}

int main(int argc, char **argv)
{
	gchar *bytes;
	gsize len;
	if (argc != 3 || !g_file_get_contents(argv[2], &bytes, &len, NULL))
		return 1;
	const GVariantType *type = G_VARIANT_TYPE(argv[1]);
	double start = now();
	GVariant *unknown = g_variant_ref_sink(g_variant_new_from_data(type, bytes, len, FALSE, NULL, NULL));
	gboolean normal = g_variant_is_normal_form(unknown);
	double checked = now();
	/* Over bytes that it doesn't trust GLib 2.74 takes time with the square of an array's length. */
	GVariant *value = g_variant_ref_sink(g_variant_new_from_data(type, bytes, len, TRUE, NULL, NULL));
	gsize size = visit(value);
	double visited = now();
	GVariant *built = g_variant_ref_sink(copy(value));
	double made = now();
	gboolean same = g_variant_get_size(built) == len && memcmp(g_variant_get_data(built), bytes, len) == 0;
	double encoded = now();
	printf("%s: GLib: check %.1f ms (%s), decode %.1f ms (%zu bytes in leaves), build %.1f ms, encode %.1f ms (same: %s)\n",
	       argv[2], checked - start, normal ? "normal" : "not normal", visited - checked, size, made - visited,
	       encoded - made, same ? "true" : "false");
	return 0;
}
