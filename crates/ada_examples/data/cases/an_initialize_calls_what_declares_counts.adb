with Ada.Finalization; with Ada.Text_IO;
procedure Main is
   type Count is new Ada.Finalization.Limited_Controlled with record Number : Integer := 2; end record;
   overriding procedure Finalize (Object : in out Count);
   type Row is record Front : Count; Back : Count; Length : Integer := 2; end record;
   type Shop is new Ada.Finalization.Limited_Controlled with record Sold : Integer := 0; end record;
   overriding procedure Initialize (Object : in out Shop);
   procedure Fill (Sold : in out Integer) is
      Shelf : Row;
   begin
      Shelf.Back.Number := 5;
      Sold := Shelf.Front.Number + Shelf.Back.Number + Shelf.Length;
   end Fill;
   overriding procedure Finalize (Object : in out Count) is
   begin
      Ada.Text_IO.Put_Line (Integer'Image (Object.Number));
   end Finalize;
   overriding procedure Initialize (Object : in out Shop) is
   begin
      Fill (Object.Sold);
      declare
         Other : Row;
      begin
         Object.Sold := Object.Sold + Other.Length;
      end;
   end Initialize;
   S : Shop;
begin
   Ada.Text_IO.Put_Line (Integer'Image (S.Sold));
end Main;
