with Ada.Finalization; with Ada.Text_IO; with Ada.Unchecked_Deallocation;
procedure Main is
   Unlucky : exception;
   type Count is new Ada.Finalization.Limited_Controlled with record Number : Integer := 0; end record;
   overriding procedure Initialize (Object : in out Count);
   type Count_Link is access Count;
   procedure Free is new Ada.Unchecked_Deallocation (Count, Count_Link);
   type Shop is new Ada.Finalization.Limited_Controlled with record Sold : Count_Link; end record;
   overriding procedure Initialize (Object : in out Shop);
   overriding procedure Initialize (Object : in out Count) is
   begin
      Object.Number := 13;
      raise Unlucky;
   end Initialize;
   overriding procedure Initialize (Object : in out Shop) is
   begin
      Object.Sold := new Count;
   exception
      when Unlucky => Ada.Text_IO.Put_Line ("unlucky");
   end Initialize;
   S : Shop;
begin
   Ada.Text_IO.Put_Line ("begun");
end Main;
