/* Every call but satmegwo_version, each with a reply that is ignored. Do not run it:
 * `make compilers` checks that every compiler warns of each line. */
#include "satmegwo.h"
#include "satmegwo_parts.h"
#include "satmegwo_design.h"
#include "satmegwo_server.h"

void ignored(satmegwo_design design, satmegwo_server server);
void ignored(satmegwo_design design, satmegwo_server server)
{
    satmegwo_refusal_text(0);
    satmegwo_spectrum(0, NULL, 0, NULL, 0);
    satmegwo_inverse_spectrum(0, NULL, 0, NULL, 0);
    satmegwo_component_spectrum(0, 0, NULL, 0, 0, NULL, 0);
    satmegwo_nonlinearity(0, 0, NULL, 0, 0, NULL, 0);
    satmegwo_nearest_pairs(0, 0, NULL, 0, 0, NULL, 0, NULL, 0);
    satmegwo_add_to_column(0, 0, NULL, 0, 0, 0, 0, NULL, 0);
    satmegwo_xor_row(0, 0, NULL, 0, 0, NULL, 0);
    satmegwo_largest_cell(0, 0, NULL, 0, NULL, 0);
    satmegwo_largest_cells(0, 0, NULL, 0, NULL, 0, NULL, 0);
    satmegwo_autocorrelation(0, 0, NULL, 0, 0, NULL, 0);
    satmegwo_dynamic_distance(0, 0, NULL, 0, 0, 0, NULL, 0);
    satmegwo_normal_form(0, NULL, 0, NULL, 0);
    satmegwo_degree(0, 0, NULL, 0, 0, NULL, 0);
    satmegwo_complete(0, 0, NULL, 0, NULL, 0);
    satmegwo_bijective(0, 0, NULL, 0, NULL, 0);
    satmegwo_enlarge_column(0, NULL, 0, 0, 0, NULL, 0);
    satmegwo_enlarge_box(0, NULL, 0, NULL, 0, 0, NULL, 0);
    satmegwo_bent_function(0, NULL, 0, NULL, 0, NULL, 0);
    satmegwo_check_box(0, 0, NULL, 0);
    satmegwo_read_box(NULL, 0, NULL, 0, NULL, 0);
    satmegwo_write_box(0, 0, NULL, 0, NULL, 0);
    satmegwo_sheet(NULL, 0, NULL, 0, NULL, 0);
    satmegwo_sum_nonlinearity(0, 0, 0, NULL, 0, 0, 0, NULL, 0, 0, 0, NULL, 0, 0, 0, NULL, 0, 0, NULL, 0);
    satmegwo_sum_of_boxes(NULL, 0, 0, NULL, 0);
    satmegwo_check_catalogue(NULL, 0, NULL, 0);
    satmegwo_add_record(NULL, 0, NULL, 0, NULL, 0);
    satmegwo_remove_record(NULL, 0, 0);
    satmegwo_fetch_record(NULL, 0, 0, NULL, 0);
    satmegwo_compact_catalogue(NULL, 0);
    satmegwo_pack_columns(0, 0, NULL, 0, NULL, 0);
    satmegwo_unpack_columns(0, 0, NULL, 0, NULL, 0);
    satmegwo_raising_swap(0, 0, NULL, 0, NULL, 0);
    satmegwo_nonlinearity_between(0, 0, NULL, 0, 0, 0, 0, NULL, 0);
    satmegwo_autocorrelation_between(0, 0, NULL, 0, 0, 0, 0, NULL, 0);
    satmegwo_dynamic_distance_between(0, 0, NULL, 0, 0, 0, 0, 0, NULL, 0);
    satmegwo_sum_nonlinearity_between(0, 0, 0, NULL, 0, 0, 0, NULL, 0, 0, 0, NULL, 0, 0, 0, NULL, 0, 0, 0, 0, NULL, 0);
    satmegwo_merge_least(NULL, 0, NULL, 0, NULL, 0);
    satmegwo_merge_largest(NULL, 0, NULL, 0, NULL, 0);
    satmegwo_design_begin(0, 0, NULL, 0);
    satmegwo_design_swap(design, 0, 0);
    satmegwo_design_add(design, 0, 0, 0);
    satmegwo_design_mark(design, 0);
    satmegwo_design_return(design, 0);
    satmegwo_design_read(design, NULL, 0, NULL, 0);
    satmegwo_server_begin();
    satmegwo_server_put(server, 0, 0, 0, NULL, 0);
    satmegwo_server_withdraw(server, 0);
    satmegwo_server_step(server);
    satmegwo_server_run(server, 0);
    satmegwo_server_ask(server, 0, NULL, 0);
}
