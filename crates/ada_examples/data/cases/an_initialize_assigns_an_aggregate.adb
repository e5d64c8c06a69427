with Ada.Finalization; with Ada.Text_IO; with Run_Input;
procedure Main is
   type Place is record Line : Integer := 1; Column : Integer := 1; end record;
   type Cell is record Value : Integer := 0; Lies : Place; end record;
   type Link is access Cell;
   type Word is new Ada.Finalization.Limited_Controlled with record
      Length : Integer := 4;
      Lies : Place;
      Held : Link;
   end record;
   overriding procedure Initialize (Object : in out Word);
   overriding procedure Initialize (Object : in out Word) is
      Given : Integer := 0;
   begin
      Run_Input.Get (Given);
      Object.Lies := Place'(Line => Given, Column => Object.Length - 1);
      Object.Held := new Cell;
      Object.Held.Lies := Object.Lies;
      Object.Held.Lies.Line := 5;
   end Initialize;
begin
   for I in 1 .. 2 loop
      declare
         W : Word;
      begin
         Ada.Text_IO.Put_Line (Integer'Image (W.Lies.Line));
         Ada.Text_IO.Put_Line (Integer'Image (W.Lies.Column));
         Ada.Text_IO.Put_Line (Integer'Image (W.Held.Lies.Line + W.Held.Lies.Column));
      end;
   end loop;
end Main;
