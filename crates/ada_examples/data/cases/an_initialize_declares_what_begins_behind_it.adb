with Ada.Finalization; with Ada.Text_IO; with Ada.Unchecked_Deallocation;
procedure Main is
   type Count is new Ada.Finalization.Limited_Controlled with record Number : Integer := 2; end record;
   overriding procedure Initialize (Object : in out Count);
   type Count_Link is access Count;
   procedure Free is new Ada.Unchecked_Deallocation (Count, Count_Link);
   type Shop is new Ada.Finalization.Limited_Controlled with record Sold : Integer := 0; end record;
   overriding procedure Initialize (Object : in out Shop);
   overriding procedure Initialize (Object : in out Shop) is
      Made : Count_Link := new Count;
      Kept : Count;
   begin
      Object.Sold := Made.Number + Kept.Number;
      Free (Made);
   end Initialize;
   overriding procedure Initialize (Object : in out Count) is
   begin
      Object.Number := Object.Number + 5;
   end Initialize;
   S : Shop;
begin
   Ada.Text_IO.Put_Line (Integer'Image (S.Sold));
end Main;
