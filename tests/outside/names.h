/*
 * The independent program under the archive's names, so that it, or a mutant of
 * it, can take the archive's place beside itself.  Included before its sources.
 */
#define ind_format tf_format
#define ind_check tf_check
#define ind_read tf_read
#define ind_write tf_write
#define ind_run tf_run
#define ind_first_broken_rule tf_first_broken_rule
#define ind_accept tf_accept
#define ind_lengths_fit tf_lengths_fit
#define ind_sound tf_sound
#define ind_update tf_update
#define ind_translate tf_translate
#define ind_step_read tf_step_read
#define ind_step_write tf_step_write
#define ind_rule tf_rule
#define ind_order tf_order
#define ind_translation_programs tf_translation_programs
#define ind_translation_reads tf_translation_reads
#define ind_settings_read tf_settings_read
#define ind_settings_write tf_settings_write
#define ind_settings_where tf_settings_where
