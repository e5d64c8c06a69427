WITH ada.TEXT_io; PROCEDURE main IS n : INTEGER := 3; BEGIN ADA.Text_Io.PUT_line (integer'image (N)); END MAIN;
