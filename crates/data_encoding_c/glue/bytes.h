/* The calls that read and write bytes, under the names that CALL makes. */

de_status CALL(numbered_encode)(de_number number, const byte *input, size_t input_len, byte *output,
                                size_t output_len, size_t *written);
de_status CALL(numbered_decode)(de_number number, const byte *input, size_t input_len, byte *output,
                                size_t output_len, de_decoded *decoded);
de_status CALL(custom_encode)(const byte *held, const byte *input, size_t input_len, byte *output,
                            size_t output_len, size_t *written);
de_status CALL(custom_decode)(const byte *held, const byte *input, size_t input_len, byte *output,
                            size_t output_len, de_decoded *decoded);
de_status CALL(numbered_decoder_read)(de_number number, de_decoder *decoder, const byte *piece,
                                      size_t piece_len, byte *output, size_t output_len,
                                      size_t *written);
de_status CALL(custom_decoder_read)(const byte *held, de_decoder *decoder, const byte *piece,
                                  size_t piece_len, byte *output, size_t output_len,
                                  size_t *written);
de_status CALL(numbered_encoder_read)(de_number number, de_encoder *encoder, const byte *piece,
                                      size_t piece_len, byte *output, size_t output_len,
                                      size_t *written);
de_status CALL(custom_encoder_read)(const byte *held, de_encoder *encoder, const byte *piece,
                                  size_t piece_len, byte *output, size_t output_len,
                                  size_t *written);
