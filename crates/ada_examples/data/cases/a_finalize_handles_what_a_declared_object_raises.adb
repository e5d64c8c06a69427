with Ada.Finalization; with Ada.Text_IO; with Ada.Unchecked_Deallocation;
procedure Main is
   type Cell is record Value : Integer := 6; end record;
   type Link is access Cell;
   procedure Free is new Ada.Unchecked_Deallocation (Cell, Link);
   type Count is new Ada.Finalization.Limited_Controlled with record Value : Integer := 0; end record;
   type Good is new Ada.Finalization.Limited_Controlled with record Value : Integer := 0; end record;
   type Both is record First : Good; Second : Count; end record;
   type Holder is new Ada.Finalization.Limited_Controlled with record Held : Link; end record;
   overriding procedure Initialize (Object : in out Count);
   overriding procedure Finalize (Object : in out Good);
   overriding procedure Finalize (Object : in out Holder);
   overriding procedure Initialize (Object : in out Count) is
   begin
      Object.Value := 1;
      raise Program_Error;
   end Initialize;
   overriding procedure Finalize (Object : in out Good) is
   begin
      Ada.Text_IO.Put_Line ("good");
   end Finalize;
   overriding procedure Finalize (Object : in out Holder) is
   begin
      declare
         B : Both;
      begin
         Ada.Text_IO.Put_Line ("never");
      end;
      Free (Object.Held);
   exception
      when Program_Error =>
         Ada.Text_IO.Put_Line ("handled");
         Free (Object.Held);
   end Finalize;
   H : Holder;
begin
   H.Held := new Cell;
end Main;
