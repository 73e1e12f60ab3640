/* A test program has no modules. */
#ifndef SHIM_MODULE_H
#define SHIM_MODULE_H

#define EXPORT_SYMBOL_GPL(name) struct shim_exported_##name
#define MODULE_LICENSE(text) struct shim_licence
#define MODULE_AUTHOR(text) struct shim_author
#define MODULE_DESCRIPTION(text) struct shim_description

#endif
